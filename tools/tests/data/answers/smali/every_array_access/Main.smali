.class public La/Main;
.super Landroid/app/Activity;
.method public onCreate(Landroid/os/Bundle;)V
    .registers 8
    invoke-static {}, Lvendor/Device;->id()Ljava/lang/String;
    move-result-object v0
    const/4 v2, 1
    new-array v3, v2, [Ljava/lang/Object;
    const/4 v2, 0
    aput v0, v3, v2
    const/4 v0, 0
    aget v0, v3, v2
    const/4 v2, 1
    new-array v3, v2, [Ljava/lang/Object;
    const/4 v2, 0
    aput-wide v0, v3, v2
    const/4 v0, 0
    aget-wide v0, v3, v2
    const/4 v2, 1
    new-array v3, v2, [Ljava/lang/Object;
    const/4 v2, 0
    aput-object v0, v3, v2
    const/4 v0, 0
    aget-object v0, v3, v2
    const/4 v2, 1
    new-array v3, v2, [Ljava/lang/Object;
    const/4 v2, 0
    aput-boolean v0, v3, v2
    const/4 v0, 0
    aget-boolean v0, v3, v2
    const/4 v2, 1
    new-array v3, v2, [Ljava/lang/Object;
    const/4 v2, 0
    aput-byte v0, v3, v2
    const/4 v0, 0
    aget-byte v0, v3, v2
    const/4 v2, 1
    new-array v3, v2, [Ljava/lang/Object;
    const/4 v2, 0
    aput-char v0, v3, v2
    const/4 v0, 0
    aget-char v0, v3, v2
    const/4 v2, 1
    new-array v3, v2, [Ljava/lang/Object;
    const/4 v2, 0
    aput-short v0, v3, v2
    const/4 v0, 0
    aget-short v0, v3, v2
    invoke-static {v0}, Lvendor/Net;->post(Ljava/lang/Object;)V
    return-void
.end method
