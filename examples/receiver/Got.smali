# A receiver that keeps the device id when a broadcast comes.
.class public La/Got;
.super Landroid/content/BroadcastReceiver;

.field public static last:Ljava/lang/String;

.method public onReceive(Landroid/content/Context;Landroid/content/Intent;)V
    .registers 4
    invoke-static {}, Lvendor/Device;->id()Ljava/lang/String;
    move-result-object v0
    sput-object v0, La/Got;->last:Ljava/lang/String;
    return-void
.end method
