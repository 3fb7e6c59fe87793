.class public abstract Li/Both;
.super Ljava/lang/Object;
.implements Li/One;
.implements Li/Two;
.implements Ljava/lang/Runnable;

.method public constructor <init>()V
    .registers 1
    invoke-direct {p0}, Ljava/lang/Object;-><init>()V
    return-void
.end method

.method public native run()V
.end method

.method protected abstract later(DF)Z
.end method

.method public static native quick(I)I
.end method

.method private synchronized declared-synchronized held()V
    .registers 1
    monitor-enter p0
    monitor-exit p0
    return-void
.end method
