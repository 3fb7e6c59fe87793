.class public La/Down;
.super La/Middle;

.method private one()V
    .registers 1
    return-void
.end method

.method public static two()V
    .registers 0
    return-void
.end method

.method public five()V
    .registers 1
    return-void
.end method
