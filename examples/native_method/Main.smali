# Calls a native method.
.class public La/Main;
.super Landroid/app/Activity;

.method public static native work()V
.end method

.method public onCreate(Landroid/os/Bundle;)V
    .registers 2
    invoke-static {}, La/Main;->work()V
    return-void
.end method
