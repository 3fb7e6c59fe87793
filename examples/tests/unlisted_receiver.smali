.class public La/Main;
.super Landroid/app/Activity;
.method public onCreate(Landroid/os/Bundle;)V
    .registers 3
    new-instance v0, Lvendor/Odd;
    invoke-virtual {v0}, Lvendor/Odd;->go()V
    invoke-virtual {v0}, Ljava/lang/Object;->notify()V
    return-void
.end method
