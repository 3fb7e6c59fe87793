.class public interface abstract La/I;
.super Ljava/lang/Object;

.method static constructor <clinit>()V
    .registers 0
    return-void
.end method

.method public abstract go()V
.end method

.method public static help()V
    .registers 0
    return-void
.end method
