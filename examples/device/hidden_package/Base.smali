# Its method is seen in its own package alone.
.class public La/Base;
.super Ljava/lang/Object;

.method public constructor <init>()V
    .registers 1
    invoke-direct {p0}, Ljava/lang/Object;-><init>()V
    return-void
.end method

.method send(Ljava/lang/Object;)V
    .registers 2
    invoke-static {p1}, Lvendor/Net;->post(Ljava/lang/Object;)V
    return-void
.end method
