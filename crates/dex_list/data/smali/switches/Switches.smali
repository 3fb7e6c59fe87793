.class public Ls/Switches;
.super Ljava/lang/Object;

.method static packed(I)I
    .registers 2
    packed-switch p0, :p
    :d
    const/4 v0, -0x1
    return v0
    :one
    const/4 v0, 0x1
    return v0
    :two
    const/4 v0, 0x2
    return v0
    :p
    .packed-switch -0x2
        :one
        :two
        :d
    .end packed-switch
.end method

.method static sparse(I)I
    .registers 2
    sparse-switch p0, :s
    const/4 v0, -0x1
    return v0
    :one
    const/4 v0, 0x1
    return v0
    :s
    .sparse-switch
        -0x80000000 -> :one
        0x0 -> :one
        0x7fffffff -> :one
    .end sparse-switch
.end method

.method static filled()[B
    .registers 2
    const/4 v0, 0x5
    new-array v0, v0, [B
    fill-array-data v0, :a
    return-object v0
    :a
    .array-data 1
        0x1t
        -0x2t
        0x3t
        0x4t
        0x5t
    .end array-data
.end method

.method static wide()[J
    .registers 2
    const/4 v0, 0x2
    new-array v0, v0, [J
    fill-array-data v0, :a
    return-object v0
    :a
    .array-data 8
        0x7fffffffffffffffL
        -0x1L
    .end array-data
.end method
