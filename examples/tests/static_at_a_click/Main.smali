.class public La/Main;
.super Landroid/app/Activity;
.field public static t:Ljava/lang/String;
.method public send(Landroid/view/View;)V
    .registers 3
    sget-object v0, La/Main;->t:Ljava/lang/String;
    invoke-static {v0}, Lvendor/Net;->post(Ljava/lang/Object;)V
    return-void
.end method
