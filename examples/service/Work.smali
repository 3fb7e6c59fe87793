# A service that keeps the device id when it is started, and posts it when it ends.
.class public La/Work;
.super Landroid/app/Service;

.field private id:Ljava/lang/String;

.method public onStartCommand(Landroid/content/Intent;II)I
    .registers 5
    invoke-static {}, Lvendor/Device;->id()Ljava/lang/String;
    move-result-object v0
    iput-object v0, p0, La/Work;->id:Ljava/lang/String;
    const/4 v0, 0x1
    return v0
.end method

.method public onDestroy()V
    .registers 2
    iget-object v0, p0, La/Work;->id:Ljava/lang/String;
    invoke-static {v0}, Lvendor/Net;->post(Ljava/lang/Object;)V
    return-void
.end method
