# Has the library run an object, and sends what that kept.
.class public La/Main;
.super Landroid/app/Activity;

.method public constructor <init>()V
    .registers 1
    invoke-direct {p0}, Landroid/app/Activity;-><init>()V
    return-void
.end method

.method public onCreate(Landroid/os/Bundle;)V
    .registers 3
    new-instance v0, La/Later;
    invoke-direct {v0}, La/Later;-><init>()V
    invoke-virtual {p0, v0}, La/Main;->runOnUiThread(Ljava/lang/Runnable;)V
    iget-object v0, v0, La/Later;->id:Ljava/lang/String;
    invoke-static {v0}, Lvendor/Net;->post(Ljava/lang/Object;)V
    return-void
.end method
