.class public Lb/Down;
.super La/Middle;

.method public four()V
    .registers 1
    return-void
.end method
