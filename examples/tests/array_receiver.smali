.class public La/Main;
.super Landroid/app/Activity;
.method public onCreate(Landroid/os/Bundle;)V
    .registers 5
    const/4 v0, 0x1
    new-array v1, v0, [Ljava/lang/String;
    const/4 v0, 0x0
    invoke-static {}, Lvendor/Device;->id()Ljava/lang/String;
    move-result-object v2
    aput-object v2, v1, v0
    invoke-virtual {v1}, [Ljava/lang/String;->clone()Ljava/lang/Object;
    move-result-object v1
    invoke-static {v1}, Lvendor/Net;->post(Ljava/lang/Object;)V
    return-void
.end method
