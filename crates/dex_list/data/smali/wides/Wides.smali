.class public Lw/Wides;
.super Ljava/lang/Object;

.field static total:J

.field sum:D

.method public static mixed(JJI)J
    .registers 11
    mul-long v0, p0, p2
    shl-long v0, v0, p4
    ushr-long/2addr v0, p4
    xor-long/2addr v0, p2
    not-long v2, v0
    int-to-long v4, p4
    div-long v0, v2, v4
    rem-int/lit16 p4, p4, 0x3e8
    rsub-int p4, p4, -0x1
    shr-int/lit8 p4, p4, 0x7f
    add-int/lit8 p4, p4, -0x80
    sput-wide v0, Lw/Wides;->total:J
    move-wide/from16 v2, p2
    move-wide/16 v4, v2
    return-wide v4
.end method

.method public grow([DI)V
    .registers 8
    aget-wide v0, p1, p2
    iget-wide v2, p0, Lw/Wides;->sum:D
    add-double v0, v0, v2
    rem-double/2addr v0, v2
    double-to-float v4, v0
    float-to-double v2, v4
    neg-double v2, v2
    aput-wide v2, p1, p2
    iput-wide v0, p0, Lw/Wides;->sum:D
    sget-wide v0, Lw/Wides;->total:J
    long-to-int v4, v0
    return-void
.end method
