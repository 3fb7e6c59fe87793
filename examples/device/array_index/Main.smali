# Sends the text that a table has for a character of the device id.
.class public La/Main;
.super Landroid/app/Activity;

.method public constructor <init>()V
    .registers 1
    invoke-direct {p0}, Landroid/app/Activity;-><init>()V
    return-void
.end method

.method public onCreate(Landroid/os/Bundle;)V
    .registers 5
    invoke-static {}, Lvendor/Device;->id()Ljava/lang/String;
    move-result-object v0
    const/4 v1, 0
    invoke-virtual {v0, v1}, Ljava/lang/String;->charAt(I)C
    move-result v0
    and-int/lit8 v0, v0, 1
    const-string v1, "0"
    const-string v2, "1"
    filled-new-array {v1, v2}, [Ljava/lang/String;
    move-result-object v1
    aget-object v0, v1, v0
    invoke-static {v0}, Lvendor/Net;->post(Ljava/lang/Object;)V
    return-void
.end method
