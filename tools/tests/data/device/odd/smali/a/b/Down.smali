.class public La/b/Down;
.super La/Up;

.method public four()V
    .registers 1
    return-void
.end method
