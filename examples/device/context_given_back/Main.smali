# Gets itself back from a view that it made, and sends the device id by that.
.class public La/Main;
.super Landroid/app/Activity;

.method public constructor <init>()V
    .registers 1
    invoke-direct {p0}, Landroid/app/Activity;-><init>()V
    return-void
.end method

.method public onCreate(Landroid/os/Bundle;)V
    .registers 4
    invoke-static {}, Lvendor/Device;->id()Ljava/lang/String;
    move-result-object v0
    new-instance v1, Landroid/view/View;
    invoke-direct {v1, p0}, Landroid/view/View;-><init>(Landroid/content/Context;)V
    invoke-virtual {v1}, Landroid/view/View;->getContext()Landroid/content/Context;
    move-result-object v1
    check-cast v1, La/Main;
    invoke-virtual {v1, v0}, La/Main;->send(Ljava/lang/Object;)V
    return-void
.end method

.method public send(Ljava/lang/Object;)V
    .registers 2
    invoke-static {p1}, Lvendor/Net;->post(Ljava/lang/Object;)V
    return-void
.end method
