# Posts what stands in a box, which a call fills by another way: by the shelf on which the box stands.
.class public La/Main;
.super Landroid/app/Activity;

.method public onCreate(Landroid/os/Bundle;)V
    .registers 4
    new-instance v0, La/Box;
    invoke-direct {v0}, La/Box;-><init>()V
    new-instance v1, La/Shelf;
    invoke-direct {v1}, La/Shelf;-><init>()V
    iput-object v0, v1, La/Shelf;->box:La/Box;
    invoke-static {v1}, La/Work;->first(La/Shelf;)V
    iget-object v0, v0, La/Box;->value:Ljava/lang/String;
    invoke-static {v0}, Lvendor/Net;->post(Ljava/lang/Object;)V
    return-void
.end method
