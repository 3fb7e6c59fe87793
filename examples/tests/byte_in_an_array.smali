# One byte of the device id goes into a new array, which is posted.
.class public La/Main;
.super Landroid/app/Activity;
.method public onCreate(Landroid/os/Bundle;)V
    .registers 7
    invoke-static {}, Lvendor/Device;->id()Ljava/lang/String;
    move-result-object v0
    invoke-virtual {v0}, Ljava/lang/String;->getBytes()[B
    move-result-object v1
    const/4 v2, 0x0
    aget-byte v3, v1, v2
    const/4 v4, 0x1
    new-array v1, v4, [B
    aput-byte v3, v1, v2
    invoke-static {v1}, Lvendor/Net;->post(Ljava/lang/Object;)V
    return-void
.end method
