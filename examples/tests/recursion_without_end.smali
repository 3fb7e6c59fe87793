.class public La/Main;
.super Landroid/app/Activity;
.method public onCreate(Landroid/os/Bundle;)V
    .registers 2
    invoke-static {}, La/Main;->again()V
    return-void
.end method
.method public static again()V
    .registers 0
    invoke-static {}, La/Main;->again()V
    return-void
.end method
