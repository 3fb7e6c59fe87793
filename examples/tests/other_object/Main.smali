.class public La/Main;
.super Landroid/app/Activity;
.method public static fill(La/A;)V
    .registers 4
    invoke-static {}, Lvendor/Device;->id()Ljava/lang/String;
    move-result-object v0
    iget-object v1, v3, La/A;->g:La/B;
    iput-object v0, v1, La/B;->f:Ljava/lang/Object;
    const/4 v2, 0x0
    iput-object v2, v3, La/A;->g:La/B;
    return-void
.end method
.method public onCreate(Landroid/os/Bundle;)V
    .registers 5
    new-instance v0, La/B;
    new-instance v1, La/A;
    iput-object v0, v1, La/A;->g:La/B;
    new-instance v2, La/B;
    invoke-static {v1}, La/Main;->fill(La/A;)V
    invoke-static {v2}, Lvendor/Net;->post(Ljava/lang/Object;)V
    return-void
.end method
