.class public La/Main;
.super Landroid/app/Activity;
.method public onCreate(Landroid/os/Bundle;)V
    .registers 2
    invoke-static {}, La/Main;->go()V
    return-void
.end method
.method public static native go()V
.end method
