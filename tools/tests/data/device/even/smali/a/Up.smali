.class public abstract La/Up;
.super Ljava/lang/Object;

.method constructor <init>()V
    .registers 1
    invoke-direct {p0}, Ljava/lang/Object;-><init>()V
    return-void
.end method

.method static constructor <clinit>()V
    .registers 0
    return-void
.end method

.method public one()V
    .registers 1
    return-void
.end method

.method public two()V
    .registers 1
    return-void
.end method

.method protected three()V
    .registers 1
    return-void
.end method

.method  four()V
    .registers 1
    return-void
.end method

.method public static five()V
    .registers 0
    return-void
.end method

.method private seven()V
    .registers 1
    return-void
.end method

.method abstract eight()V
.end method
