.class public Lt/Tries;
.super Ljava/lang/Object;

.method static one(I)I
    .registers 2
    :a
    div-int v0, p0, p0
    :b
    .catch Ljava/lang/ArithmeticException; {:a .. :b} :h
    return v0
    :h
    move-exception v0
    const/4 v0, 0x0
    return v0
.end method

.method static many(I)I
    .registers 3
    :a
    div-int v0, p0, p0
    :b
    div-int v1, v0, p0
    :c
    .catch Ljava/lang/ArithmeticException; {:a .. :b} :h
    .catch Ljava/lang/RuntimeException; {:a .. :b} :g
    .catch Ljava/lang/Error; {:a .. :b} :h
    .catchall {:a .. :b} :k
    .catchall {:b .. :c} :k
    return v1
    :h
    move-exception v0
    return p0
    :g
    move-exception v0
    const/4 v0, 0x1
    return v0
    :k
    move-exception v1
    const/16 v0, 0x100
    return v0
.end method

.method static shared(I)V
    .registers 3
    :a
    div-int v0, p0, p0
    :b
    nop
    :c
    div-int v0, p0, p0
    :d
    .catch Ljava/lang/Exception; {:a .. :b} :h
    .catch Ljava/lang/Exception; {:c .. :d} :h
    return-void
    :h
    move-exception v0
    throw v0
.end method

.method static none(I)V
    .registers 1
    return-void
.end method
