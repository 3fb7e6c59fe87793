# Hands an object that holds the device id to a handler, which runs it later.
.class public La/Main;
.super Landroid/app/Activity;

.method public onCreate(Landroid/os/Bundle;)V
    .registers 5
    new-instance v0, Landroid/os/Handler;
    invoke-direct {v0}, Landroid/os/Handler;-><init>()V
    invoke-static {}, Lvendor/Device;->id()Ljava/lang/String;
    move-result-object v1
    new-instance v2, La/Later;
    invoke-direct {v2, v1}, La/Later;-><init>(Ljava/lang/String;)V
    invoke-virtual {v0, v2}, Landroid/os/Handler;->post(Ljava/lang/Runnable;)Z
    return-void
.end method
