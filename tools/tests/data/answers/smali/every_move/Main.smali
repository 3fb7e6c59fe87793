.class public La/Main;
.super Landroid/app/Activity;
.method public onCreate(Landroid/os/Bundle;)V
    .registers 32
    invoke-static {}, Lvendor/Device;->id()Ljava/lang/String;
    move-result-object v0
    move v1, v0
    move/from16 v20, v1
    move/16 v21, v20
    move/from16 v2, v21
    move-object v3, v2
    move-object/from16 v22, v3
    move-object/16 v23, v22
    move-object/from16 v4, v23
    move-wide v6, v4
    move-wide/from16 v24, v6
    move-wide/16 v26, v24
    const/4 v0, 0
    move-object/from16 v0, v26
    invoke-static {v0}, Lvendor/Net;->post(Ljava/lang/Object;)V
    return-void
.end method
