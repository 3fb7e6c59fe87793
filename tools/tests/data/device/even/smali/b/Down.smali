.class public Lb/Down;
.super La/Up;

.method private constructor <init>()V
    .registers 1
    invoke-direct {p0}, La/Up;-><init>()V
    return-void
.end method

.method static constructor <clinit>()V
    .registers 0
    return-void
.end method

.method public one()V
    .registers 1
    return-void
.end method

.method public three()V
    .registers 1
    return-void
.end method

.method public four(I)V
    .registers 2
    return-void
.end method

.method public eight()V
    .registers 1
    return-void
.end method
