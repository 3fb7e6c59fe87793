.class public La/Stat;
.super Ljava/lang/Object;

.field public static own:Ljava/lang/Object;

.method public static never()V
    .registers 1
    const/4 v0, 0x0
    sput-object v0, La/SubStat;->own:Ljava/lang/Object;
    sget-object v0, La/SubStat;->own:Ljava/lang/Object;
    sget v0, Llib/S;->count:I
    sget-object v0, Llib/S;->LISTED:Ljava/lang/String;
    return-void
.end method
