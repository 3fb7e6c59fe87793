.class public Lb/Low;
.super Lb/Down;

.method public four()V
    .registers 1
    return-void
.end method
