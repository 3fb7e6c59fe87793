.class public La/Up;
.super Ljava/lang/Object;

.method public one()V
    .registers 1
    return-void
.end method

.method public two()V
    .registers 1
    return-void
.end method

.method  four()V
    .registers 1
    return-void
.end method

.method public static five()V
    .registers 0
    return-void
.end method
