.class public La/Stat;
.super Ljava/lang/Object;

.method public static never()V
    .registers 1
    const/4 v0, 0x0
    sput-object v0, Llib/S;->kept:Ljava/lang/Object;
    sput v0, Llib/S;->count:I
    sget-object v0, Llib/S;->OTHER:Ljava/lang/Object;
    sget-object v0, Llib/S;->LISTED:Ljava/lang/Object;
    sget-object v0, Llib/S;->TABLE:[I
    return-void
.end method
