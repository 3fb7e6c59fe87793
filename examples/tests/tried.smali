.class public La/Main;
.super Landroid/app/Activity;
.method public onCreate(Landroid/os/Bundle;)V
    .registers 3
    :begin
    invoke-static {}, Lvendor/Device;->id()Ljava/lang/String;
    :end
    .catchall {:begin .. :end} :handler
    return-void
    :handler
    move-exception v0
    return-void
.end method
