.class public La/Arrays;
.super Ljava/lang/Object;

.method static shorts()[S
    .registers 2
    const/4 v0, 0x3
    new-array v0, v0, [S
    fill-array-data v0, :data
    return-object v0
    :data
    .array-data 2
        -0x1s
        0x7fffs
        0x0s
    .end array-data
.end method

.method static ints()[I
    .registers 3
    const/4 v0, 0x1
    const/4 v1, 0x2
    filled-new-array {v0, v1}, [I
    move-result-object v2
    filled-new-array/range {v0 .. v1}, [I
    move-result-object v2
    array-length v0, v2
    aget v1, v2, v0
    aput v1, v2, v0
    return-object v2
.end method

.method static floats()[F
    .registers 2
    const/4 v0, 0x2
    new-array v0, v0, [F
    fill-array-data v0, :data
    return-object v0
    :data
    .array-data 4
        0x3f800000
        -0x1
    .end array-data
.end method
