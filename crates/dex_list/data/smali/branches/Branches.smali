.class public Lb/Branches;
.super Ljava/lang/Object;

.method static loops(II)I
    .registers 4
    const/4 v0, 0x0
    :top
    if-lez p0, :done
    if-eq p0, p1, :skip
    add-int/2addr v0, p0
    :skip
    add-int/lit8 p0, p0, -0x1
    goto :top
    :done
    if-nez v0, :far
    return p1
    :far
    goto/32 :back
    :back
    return v0
.end method

.method static compares(JJFFDD)I
    .registers 14
    cmp-long v0, p0, p2
    cmpl-float v1, p4, p5
    cmpg-float v1, p4, p5
    cmpl-double v1, p6, p8
    cmpg-double v1, p6, p8
    if-gtz v1, :one
    if-ltz v0, :one
    :zero
    const/4 v0, 0x0
    :one
    return v0
.end method
