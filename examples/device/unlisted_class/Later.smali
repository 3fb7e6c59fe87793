# Is a Runnable by an interface that the lists do not have.
.class public La/Later;
.super Ljava/lang/Object;
.implements Ljava/util/concurrent/RunnableFuture;

.method public constructor <init>()V
    .registers 1
    invoke-direct {p0}, Ljava/lang/Object;-><init>()V
    return-void
.end method

.method public run()V
    .registers 2
    invoke-static {}, Lvendor/Device;->id()Ljava/lang/String;
    move-result-object v0
    invoke-static {v0}, Lvendor/Net;->post(Ljava/lang/Object;)V
    return-void
.end method
