# Stands in another package, so this method does not override the one of Base.
.class public Lb/Quiet;
.super La/Base;

.method public constructor <init>()V
    .registers 1
    invoke-direct {p0}, La/Base;-><init>()V
    return-void
.end method

.method public send(Ljava/lang/Object;)V
    .registers 2
    return-void
.end method
