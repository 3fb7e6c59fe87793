# Calls a library method of which the lists say nothing.
.class public La/Main;
.super Landroid/app/Activity;

.method public onCreate(Landroid/os/Bundle;)V
    .registers 3
    invoke-static {}, Lvendor/Odd;->go()V
    return-void
.end method
