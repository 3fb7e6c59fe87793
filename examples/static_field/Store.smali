# Keeps the device id in a static field.
.class public La/Store;
.super Ljava/lang/Object;

.field public static last:Ljava/lang/String;

.method public static keep()V
    .registers 1
    invoke-static {}, Lvendor/Device;->id()Ljava/lang/String;
    move-result-object v0
    sput-object v0, La/Store;->last:Ljava/lang/String;
    return-void
.end method
