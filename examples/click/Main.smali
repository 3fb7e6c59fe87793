# Keeps the device id; a click, which the layout names, posts it.
.class public La/Main;
.super Landroid/app/Activity;

.field private id:Ljava/lang/String;

.method public onCreate(Landroid/os/Bundle;)V
    .registers 3
    invoke-static {}, Lvendor/Device;->id()Ljava/lang/String;
    move-result-object v0
    iput-object v0, p0, La/Main;->id:Ljava/lang/String;
    return-void
.end method

.method public send(Landroid/view/View;)V
    .registers 3
    iget-object v0, p0, La/Main;->id:Ljava/lang/String;
    invoke-static {v0}, Lvendor/Net;->post(Ljava/lang/Object;)V
    return-void
.end method
