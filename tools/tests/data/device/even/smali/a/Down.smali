.class public La/Down;
.super La/Up;

.method constructor <init>()V
    .registers 1
    invoke-direct {p0}, La/Up;-><init>()V
    return-void
.end method

.method static constructor <clinit>()V
    .registers 0
    return-void
.end method

.method public one()V
    .registers 1
    return-void
.end method

.method public four()V
    .registers 1
    return-void
.end method

.method public static five()V
    .registers 0
    return-void
.end method

.method public seven()V
    .registers 1
    return-void
.end method
