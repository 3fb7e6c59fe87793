.class public LTop;
.super Ljava/lang/Object;

.method  mine()V
    .registers 1
    return-void
.end method
