.class public interface abstract La/I;
.super Ljava/lang/Object;

.method public go()V
    .registers 1
    return-void
.end method

.method public native ring()V
.end method
