# Puts the device id into an array; a method that gets the array posts an element of it.
.class public La/Main;
.super Landroid/app/Activity;

.method public onCreate(Landroid/os/Bundle;)V
    .registers 5
    const/4 v0, 0x1
    new-array v0, v0, [Ljava/lang/String;
    const/4 v1, 0x0
    invoke-static {}, Lvendor/Device;->id()Ljava/lang/String;
    move-result-object v2
    aput-object v2, v0, v1
    invoke-static {v0}, La/Main;->show([Ljava/lang/String;)V
    return-void
.end method

.method public static show([Ljava/lang/String;)V
    .registers 2
    const/4 v0, 0x0
    aget-object v0, p0, v0
    invoke-static {v0}, Lvendor/Net;->post(Ljava/lang/Object;)V
    return-void
.end method
