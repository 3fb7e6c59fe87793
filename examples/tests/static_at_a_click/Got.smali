.class public La/Got;
.super Landroid/content/BroadcastReceiver;
.method public onReceive(Landroid/content/Context;Landroid/content/Intent;)V
    .registers 4
    invoke-static {}, Lvendor/Device;->id()Ljava/lang/String;
    move-result-object v0
    sput-object v0, La/Main;->t:Ljava/lang/String;
    return-void
.end method
