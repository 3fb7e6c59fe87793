# Posts what another class keeps in a static field.
.class public La/Main;
.super Landroid/app/Activity;

.method public onCreate(Landroid/os/Bundle;)V
    .registers 2
    invoke-static {}, La/Store;->keep()V
    return-void
.end method

.method public onStop()V
    .registers 2
    sget-object v0, La/Store;->last:Ljava/lang/String;
    invoke-static {v0}, Lvendor/Net;->post(Ljava/lang/Object;)V
    return-void
.end method
