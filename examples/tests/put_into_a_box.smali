# A library object gets the device id as an argument, and is posted.
.class public La/Main;
.super Landroid/app/Activity;
.method public onCreate(Landroid/os/Bundle;)V
    .registers 4
    new-instance v0, Lvendor/Box;
    invoke-direct {v0}, Lvendor/Box;-><init>()V
    invoke-static {}, Lvendor/Device;->id()Ljava/lang/String;
    move-result-object v1
    invoke-virtual {v0, v1}, Lvendor/Box;->add(Ljava/lang/Object;)Z
    invoke-static {v0}, Lvendor/Net;->post(Ljava/lang/Object;)V
    return-void
.end method
