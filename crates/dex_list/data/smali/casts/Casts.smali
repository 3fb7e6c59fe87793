.class public Lc/Casts;
.super Ljava/lang/Object;

.method static all(ILjava/lang/Object;)Ljava/lang/Object;
    .registers 8
    int-to-long v0, p0
    long-to-double v2, v0
    double-to-float v4, v2
    float-to-int v4, v4
    int-to-byte v4, v4
    int-to-char v4, v4
    int-to-short v4, v4
    neg-long v0, v0
    not-int v4, v4
    add-double/2addr v2, v2
    shl-long/2addr v0, v4
    instance-of v5, p1, [Ljava/lang/String;
    check-cast p1, [I
    return-object p1
.end method
