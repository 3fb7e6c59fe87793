# A helper gets the device id from one call and a constant from another; the constant that comes back is posted.
.class public La/Main;
.super Landroid/app/Activity;

.method public static same(Ljava/lang/Object;)Ljava/lang/Object;
    .registers 1
    return-object p0
.end method

.method public onCreate(Landroid/os/Bundle;)V
    .registers 3
    invoke-static {}, Lvendor/Device;->id()Ljava/lang/String;
    move-result-object v0
    invoke-static {v0}, La/Main;->same(Ljava/lang/Object;)Ljava/lang/Object;
    const-string v0, "hello"
    invoke-static {v0}, La/Main;->same(Ljava/lang/Object;)Ljava/lang/Object;
    move-result-object v0
    invoke-static {v0}, Lvendor/Net;->post(Ljava/lang/Object;)V
    return-void
.end method
