# Sends the device id when it is initialised.
.class public La/Hidden;
.super Ljava/lang/Object;

.method static constructor <clinit>()V
    .registers 1
    invoke-static {}, Lvendor/Device;->id()Ljava/lang/String;
    move-result-object v0
    invoke-static {v0}, Lvendor/Net;->post(Ljava/lang/Object;)V
    return-void
.end method
