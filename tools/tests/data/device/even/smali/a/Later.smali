.class public La/Later;
.super Ljava/lang/Object;
.implements Ljava/lang/Runnable;
.implements La/I;

.method public run()V
    .registers 1
    return-void
.end method

.method public go()V
    .registers 1
    return-void
.end method
