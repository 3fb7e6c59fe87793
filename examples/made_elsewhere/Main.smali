# Posts what stands in a box that is made and filled elsewhere.
.class public La/Main;
.super Landroid/app/Activity;

.method public onCreate(Landroid/os/Bundle;)V
    .registers 4
    invoke-static {}, La/Maker;->make()La/Box;
    move-result-object v0
    invoke-static {v0}, La/Maker;->fill(La/Box;)V
    iget-object v1, v0, La/Box;->value:Ljava/lang/String;
    invoke-static {v1}, Lvendor/Net;->post(Ljava/lang/Object;)V
    return-void
.end method
