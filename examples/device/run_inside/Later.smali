# Keeps the device id when it runs.
.class public La/Later;
.super Ljava/lang/Object;
.implements Ljava/lang/Runnable;

.field public id:Ljava/lang/String;

.method public constructor <init>()V
    .registers 1
    invoke-direct {p0}, Ljava/lang/Object;-><init>()V
    return-void
.end method

.method public run()V
    .registers 2
    invoke-static {}, Lvendor/Device;->id()Ljava/lang/String;
    move-result-object v0
    iput-object v0, p0, La/Later;->id:Ljava/lang/String;
    return-void
.end method
