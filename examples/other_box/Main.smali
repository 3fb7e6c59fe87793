# Posts what stands in another box than the one that is filled.
.class public La/Main;
.super Landroid/app/Activity;

.method public onCreate(Landroid/os/Bundle;)V
    .registers 5
    new-instance v0, La/Box;
    invoke-direct {v0}, La/Box;-><init>()V
    new-instance v1, La/Shelf;
    invoke-direct {v1}, La/Shelf;-><init>()V
    iput-object v0, v1, La/Shelf;->box:La/Box;
    new-instance v2, La/Box;
    invoke-direct {v2}, La/Box;-><init>()V
    invoke-static {v1}, La/Work;->first(La/Shelf;)V
    iget-object v2, v2, La/Box;->value:Ljava/lang/String;
    invoke-static {v2}, Lvendor/Net;->post(Ljava/lang/Object;)V
    return-void
.end method
