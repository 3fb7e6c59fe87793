.class public La/Serv;
.super Landroid/app/Service;

.method public tap(Landroid/view/View;)V
    .registers 2
    return-void
.end method
