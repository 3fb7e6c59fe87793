.class public LLow;
.super LTop;

.method  mine()V
    .registers 1
    return-void
.end method
