# Sends the device id when it is made.
.class public La/Hidden;
.super Landroid/app/Fragment;

.method public constructor <init>()V
    .registers 2
    invoke-direct {p0}, Landroid/app/Fragment;-><init>()V
    invoke-static {}, Lvendor/Device;->id()Ljava/lang/String;
    move-result-object v0
    invoke-static {v0}, Lvendor/Net;->post(Ljava/lang/Object;)V
    return-void
.end method
