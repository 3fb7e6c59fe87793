.class public La/Main;
.super Landroid/app/Activity;
.method public onCreate(Landroid/os/Bundle;)V
    .registers 3
    new-instance v0, La/Task;
    invoke-interface {v0}, Ljava/lang/Runnable;->run()V
    return-void
.end method
